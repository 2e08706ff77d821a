# What captures.sh, install.sh and fleet.sh tell by: how much they asked, and what didn't hold.
passed=0
failed=0

tell() { # NAME OK
    if [ "$2" = yes ]; then
        passed=$((passed + 1))
    else
        failed=$((failed + 1))
        echo "failed: $1"
    fi
}
