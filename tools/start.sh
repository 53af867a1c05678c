# What chooses and starts a program of hcache, for ./hcache and for the one that is installed.

# The crate whose program has that command: one serves clients, and another does the rest.
crate_of() {
    case $1 in
        proxy | serve) echo hc_proxy_prog ;;
        *) echo hc_prog ;;
    esac
}

# Becomes the program, for this command and by the words after it. A proxy hears of SIGTERM and SIGINT where they are
# blocked, and has a file open for each connection. Its large bodies have memory of their own, which goes back to the
# system with them: else the C library keeps it in pieces, and more than twice as much as is held.
start() {
    command=$1
    shift
    if [ "$command" = proxy ]; then
        ulimit -S -n "$(ulimit -H -n)" 2>/dev/null
        export MALLOC_MMAP_THRESHOLD_="${MALLOC_MMAP_THRESHOLD_:-262144}"
        env --block-signal=TERM,INT true 2>/dev/null && exec env --block-signal=TERM,INT "$@"
    fi
    exec "$@"
}
