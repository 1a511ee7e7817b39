//! Networks as lists, and the flat words of their tables. They are laid out here once more, and not by the library's loader: its words are
//! held to these (`gtfs.rs`).

pub const ABSENT: u32 = u32::MAX;

#[derive(Clone, Default)]
pub struct Route {
    pub stops: Vec<u32>,
    /// of each trip: arrival and departure at each position
    pub trips: Vec<Vec<(u32, u32)>>,
}

#[derive(Clone)]
pub struct Transfer {
    pub from: u32,
    pub to: u32,
    pub span: u32,
    pub metres: f32,
}

#[derive(Clone)]
pub struct Walk {
    pub from: u32,
    pub to: u32,
    pub metres: f32,
}

/// Trips are numbered route by route.
#[derive(Clone, Default)]
pub struct Network {
    /// of each stop: its station, or ABSENT
    pub stations: Vec<u32>,
    pub routes: Vec<Route>,
    pub transfers: Vec<Transfer>,
    pub walks: Vec<Walk>,
    /// of each area: the stops that it names
    pub areas: Vec<Vec<u32>>,
}

/// A starts section and its list: the rows under each entry, one entry after another.
fn starts_and_list(width: usize, entries: &[Vec<u32>]) -> [Vec<u32>; 2] {
    let mut starts = vec![0];
    let mut list = vec![];
    for rows in entries {
        list.extend(rows);
        starts.push((list.len() / width) as u32);
    }
    [starts, list]
}

impl Network {
    /// So many stops, and nothing else.
    pub fn with_stops(count: usize) -> Network {
        Network { stations: vec![ABSENT; count], ..Network::default() }
    }

    /// The rows of each stop: those that `row` gives for the items, under the stop that it names.
    fn under_stops<T>(&self, items: &[T], row: impl Fn(&T) -> (u32, Vec<u32>)) -> Vec<Vec<u32>> {
        let mut under = vec![vec![]; self.stations.len()];
        for (stop, words) in items.iter().map(row) {
            under[stop as usize].extend(words);
        }
        under
    }

    /// Of each stop: the routes that contain it, ascending, each with the stop's first and last position.
    fn calls(&self) -> Vec<Vec<u32>> {
        let of_stop = |stop: u32| {
            self.routes.iter().enumerate().flat_map(move |(number, route)| {
                let first = route.stops.iter().position(|&s| s == stop)?;
                let last = route.stops.iter().rposition(|&s| s == stop)?;
                Some([number as u32, first as u32, last as u32])
            })
        };
        (0..self.stations.len() as u32).map(|stop| of_stop(stop).flatten().collect()).collect()
    }

    fn served(&self) -> Vec<u32> {
        let passes = |stop: u32| self.routes.iter().any(|r| !r.trips.is_empty() && r.stops.contains(&stop)) as u32;
        (0..self.stations.len() as u32).map(passes).collect()
    }

    fn children(&self) -> Vec<Vec<u32>> {
        let mut children = vec![vec![]; self.stations.len()];
        for (stop, &station) in self.stations.iter().enumerate().filter(|(_, &station)| station != ABSENT) {
            children[station as usize].push(stop as u32);
        }
        children
    }

    /// The flat words: a header that says where each section begins and how long all is, then the 20 sections.
    pub fn words(&self) -> Vec<u32> {
        let transfer = |t: &Transfer| (t.from, vec![t.from, t.to, t.span, t.metres.to_bits()]);
        let walk = |w: &Walk| (w.from, vec![w.to, w.metres.to_bits()]);
        let route_stops: Vec<Vec<u32>> = self.routes.iter().map(|r| r.stops.clone()).collect();
        let mut trips = 0..;
        let route_trips: Vec<Vec<u32>> =
            self.routes.iter().map(|r| trips.by_ref().take(r.trips.len()).collect()).collect();
        let times: Vec<Vec<u32>> = (self.routes.iter().flat_map(|r| &r.trips))
            .map(|trip| trip.iter().flat_map(|&(arrival, departure)| [arrival, departure]).collect())
            .collect();

        let route_of = self.routes.iter().enumerate().flat_map(|(number, r)| vec![number as u32; r.trips.len()]);
        let standing = route_of.zip(0..).flat_map(|(route, trip)| [route, trip]).collect(); // a trip's place is its number

        let mut sections = vec![(0..self.stations.len() as u32).collect(), self.stations.clone()];
        sections.extend(starts_and_list(1, &self.children()));
        sections.extend(starts_and_list(3, &self.calls()));
        sections.push(self.served());
        sections.extend(starts_and_list(4, &self.under_stops(&self.transfers, transfer)));
        sections.extend(starts_and_list(2, &self.under_stops(&self.walks, walk)));
        sections.extend(starts_and_list(1, &route_stops));
        sections.extend(starts_and_list(1, &route_trips));
        sections.extend(starts_and_list(2, &times));
        sections.extend(starts_and_list(1, &self.areas));
        sections.push(standing);

        let mut words = vec![21];
        for section in &sections {
            words.push(words[words.len() - 1] + section.len() as u32);
        }
        assert_eq!(words.len(), 21);
        words.extend(sections.concat());
        words
    }
}

fn still(moments: &[u32]) -> Vec<(u32, u32)> {
    moments.iter().map(|&moment| (moment, moment)).collect()
}

/// Document 01's network N.
pub fn n() -> Network {
    let long = Route {
        stops: vec![0, 1, 2],
        trips: vec![vec![(100, 100), (200, 210), (300, 300)], vec![(400, 400), (500, 510), (600, 600)]],
    };
    let short = Route { stops: vec![3, 4], trips: vec![still(&[350, 450]), still(&[650, 750])] };
    Network {
        routes: vec![long, short],
        transfers: vec![Transfer { from: 2, to: 3, span: 30, metres: 0.0 }],
        ..Network::with_stops(5)
    }
}

/// N with the transfer listed the other way too, as N9 has it.
pub fn n_both_ways() -> Network {
    let mut network = n();
    network.transfers.push(Transfer { from: 3, to: 2, span: 30, metres: 0.0 });
    network
}

/// Document 01's network M.
pub fn m() -> Network {
    Network {
        routes: vec![
            Route { stops: vec![0, 1, 2], trips: vec![still(&[100, 300, 400])] },
            Route { stops: vec![0, 1], trips: vec![still(&[150, 200])] },
        ],
        ..Network::with_stops(3)
    }
}

/// N with stations 5 (of stop 0) and 6 (of stop 4), an unserved stop 7 with its station 8, and the areas that name them: 0 the first, 1 the
/// second, 2 the unserved one, 3 none.
pub fn n_with_areas() -> Network {
    let mut network = n();
    network.stations = vec![5, ABSENT, ABSENT, ABSENT, 6, ABSENT, ABSENT, 8, ABSENT];
    network.areas = vec![vec![5], vec![6], vec![8], vec![]];
    network
}
