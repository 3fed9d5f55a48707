# Read by the tests of this folder, before they leave it: counts what is not as expected of the last start, whose output stands in `out` and whose words in `told`.
name=$(basename "$0" .sh)
starts=0 failed=0 status=0

expect() { # expect WHAT TEST..
    what=$1
    shift
    "$@" || {
        failed=$((failed + 1))
        echo "$name: $what: not '$*'; status $status, $(wc -c < out) bytes: $(head -c 300 out | tr -c '[:print:]\n' '?'), told: $(cat told)"
    }
}
