# Runs $program with the words at hand, for ./moveledger and for the one that scripts/install installs: they read this, with $scripts set
# to the folder that has until-signal.

# A file that is longer than it may be is a failed write, which is told, and not the program's end.
trap '' XFSZ
# A signal that is sent to end it ends a run over a pipe behind a record, and the ledger is saved.
case " $* " in
" apply "*--save*" - "* | " apply "*" - "*--save* | " apply - "*--save*)
    python=$(command -v python3) || python=
    case $python in
    # The command of a version manager may have nothing to start, and then only says so.
    */shims/*) python=$(python3 -I -S -c 'import sys; print(sys.executable)' 2> /dev/null) || python= ;;
    esac
    if [ -n "$python" ] && { [ -p /dev/stdin ] || [ -S /dev/stdin ] || [ -t 0 ]; }; then
        # What Python says of a signal while it starts is for no one: standard error is kept as 9 so long, if nothing else is.
        if ! true 2>/dev/null >&9 && true 9>&2; then
            export MOVELEDGER_ERRORS=9
            exec "$python" -I -S "$scripts/until-signal" "$program" "$@" 9>&2 2>/dev/null
        fi
        exec "$python" -I -S "$scripts/until-signal" "$program" "$@"
    fi
    ;;
esac
exec "$program" "$@"
