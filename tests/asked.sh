# For the tests of the scripts at the top, which read it: `script` is the one that is run, `input` the file on its standard input.
# asked STATUS STREAM ARG..: it ends with the status, says something on the stream (output or error), left in the file `said`, and nothing on the other
asks=0
asked() {
    status=$1 stream=$2
    shift 2
    ended=0
    "$script" "$@" >output 2>error <"$input" || ended=$?
    case $stream in
    output) mv output said && quiet=error ;;
    error) mv error said && quiet=output ;;
    esac
    if [ $ended -ne "$status" ] || [ -s $quiet ] || [ ! -s said ]; then
        echo "$script $* <$input: status $ended, and $status was expected; on the $stream stream:"
        cat said
        echo "on the other:"
        cat $quiet
        exit 1
    fi
    asks=$((asks + 1))
}
# says TEXT: what was said has it as a line
says() { grep -Fqx "$1" said || { echo "$script does not say: $1"; cat said; exit 1; }; }
