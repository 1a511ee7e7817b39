//! Stand-in for the source's loader: builds a `Repository` from the flat tables. It stands below `repository`, whose private
//! lookup maps it fills, so the imported text stays unchanged.
use super::super::*;
use crate::{
    flat::{Flat, NONE, Section},
    lent::Lent,
    shared::time::{Duration, Time},
};

/// The repository, and the distances to lend for it.
pub fn build(words: &[u32]) -> Result<(Repository, Lent), String> {
    let f = Flat::new(words)?;
    let (s, r, t, a) = (f.stops(), f.routes(), f.trips(), f.areas());
    let name = |kind: char, i: usize| -> Arc<str> { format!("{kind}{i}").into() };
    let boxed = |v: &[u32]| v.to_vec().into_boxed_slice();

    let stops: Vec<Stop> = (0..s)
        .map(|i| Stop {
            index: i as u32,
            id: name('s', i),
            name: name('s', i),
            normalized_name: name('s', i),
            coordinate: Coordinate::new(i as f32, 0.0),
            parent_index: Some(f.section(Section::Stations)[i]).filter(|&p| p != NONE),
        })
        .collect();
    let areas: Vec<Area> = (0..a)
        .map(|i| Area { index: i as u32, id: name('a', i), name: name('a', i), normalized_name: name('a', i) })
        .collect();
    let raptor_routes: Vec<RaptorRoute> = (0..r)
        .map(|i| RaptorRoute {
            index: i as u32,
            route_idx: i as u32,
            stops: f.under(Section::RouteStops, 1, i).into(),
            trips: f.under(Section::RouteTrips, 1, i).into(),
        })
        .collect();

    let mut trip_route = vec![NONE; t];
    for route in &raptor_routes {
        for &trip in route.trips.iter() {
            if trip_route[trip as usize] != NONE {
                return Err(format!("trip {trip} stands in two routes"));
            }
            trip_route[trip as usize] = route.index;
        }
    }
    if let Some(i) = trip_route.iter().position(|&x| x == NONE) {
        return Err(format!("trip {i} stands in no route"));
    }
    let mut stop_times = vec![];
    let mut slices = vec![];
    let mut stop_to_trips: Vec<Vec<u32>> = vec![vec![]; s];
    for i in 0..t {
        let route = &raptor_routes[trip_route[i] as usize];
        let rows = f.under(Section::Times, 2, i);
        if rows.len() != 2 * route.stops.len() {
            return Err(format!("trip {i} has the wrong number of stop times"));
        }
        let slice = Slice { start_idx: f.section(Section::TimeStarts)[i], count: route.stops.len() as u32 };
        slices.push(slice);
        for (p, row) in rows.chunks(2).enumerate() {
            let stop = route.stops[p];
            let passing = &mut stop_to_trips[stop as usize];
            if passing.last() != Some(&(i as u32)) {
                passing.push(i as u32)
            }
            stop_times.push(StopTime {
                index: stop_times.len() as u32,
                trip_idx: i as u32,
                stop_idx: stop,
                sequence: p as u32 + 1,
                slice,
                inner_idx: p as u32,
                arrival_time: Time::from_seconds(row[0]),
                departure_time: Time::from_seconds(row[1]),
                ..Default::default()
            });
        }
    }
    for i in 0..s {
        if (f.section(Section::Served)[i] == 1) == stop_to_trips[i].is_empty() {
            return Err(format!("the served mark of stop {i} is wrong"));
        }
    }
    let trips: Vec<Trip> = (0..t)
        .map(|i| Trip {
            index: i as u32,
            id: name('t', i),
            route_idx: trip_route[i],
            raptor_route_idx: trip_route[i],
            ..Default::default()
        })
        .collect();
    let transfers: Vec<Transfer> = f
        .section(Section::Transfers)
        .chunks(4)
        .map(|x| Transfer {
            from_stop_idx: x[0],
            to_stop_idx: x[1],
            min_transfer_time: Some(x[2]).filter(|&d| d != NONE).map(Duration::from_seconds),
            ..Default::default()
        })
        .collect();

    // Only distances that are read are lent: those of unstated transfers and of walks.
    let mut pairs: Vec<(u32, u32, f32)> = vec![];
    for x in f.section(Section::Transfers).chunks(4).filter(|x| x[2] == NONE) {
        pairs.push((x[0], x[1], f32::from_bits(x[3])))
    }
    for i in 0..s {
        for x in f.under(Section::Walks, 2, i).chunks(2) {
            pairs.push((i as u32, x[0], f32::from_bits(x[1])))
        }
    }
    let lent = Lent::new(s, &pairs)?;

    let transfer_starts = f.section(Section::TransferStarts);
    let repository = Repository {
        stop_lookup: stops.iter().map(|x| (x.id.clone(), x.index)).collect(),
        area_lookup: areas.iter().map(|x| (x.id.clone(), x.index)).collect(),
        trip_lookup: trips.iter().map(|x| (x.id.clone(), x.index)).collect(),
        route_lookup: Default::default(),
        stop_distance_lookup: Default::default(), // no cells: coordinates are left to others
        routes: Default::default(),
        shapes: Default::default(),
        route_to_trips: (0..r).map(|i| boxed(f.under(Section::RouteTrips, 1, i))).collect(),
        trip_to_route: trip_route.clone().into(),
        area_to_stops: (0..a).map(|i| boxed(f.under(Section::AreaStops, 1, i))).collect(),
        stop_to_area: vec![None; s].into(),
        station_to_stops: (0..s).map(|i| boxed(f.under(Section::Children, 1, i))).collect(),
        stop_to_transfers: (0..s).map(|i| (transfer_starts[i]..transfer_starts[i + 1]).collect()).collect(),
        stop_to_trips: stop_to_trips.into_iter().map(|v| v.into_boxed_slice()).collect(),
        trip_to_stop_times_slice: slices.into(),
        route_to_raptors: (0..r as u32).map(|i| boxed(&[i])).collect(),
        stop_to_raptors: (0..s).map(|i| f.under(Section::Calls, 3, i).chunks(3).map(|x| x[0]).collect()).collect(),
        stop_to_walk_stop: (0..s).map(|i| f.under(Section::Walks, 2, i).chunks(2).map(|x| x[0]).collect()).collect(),
        raptor_to_shapes_slice: vec![None; r].into(),
        stops: stops.into(),
        areas: areas.into(),
        raptor_routes: raptor_routes.into(),
        trips: trips.into(),
        stop_times: stop_times.into(),
        transfers: transfers.into(),
    };
    Ok((repository, lent))
}
