# Functions of packaging/try and packaging/walk. They need $work, a folder of their own.
failed=0

# What is checked, and a command that succeeds or prints what is wrong.
check() {
    what=$1
    shift
    if "$@" > "$work/said" 2>&1; then
        echo "passed $what"
    else
        failed=$((failed + 1))
        echo "failed $what"
        sed 's/^/    /' "$work/said"
    fi
}

# The same, where the program that it needs is installed.
check_with() {
    if command -v "$1" >/dev/null; then
        shift
        check "$@"
    else
        echo "not installed: $1"
    fi
}
