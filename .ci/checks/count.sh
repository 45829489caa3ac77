# For the check-* scripts, which source it: counts what passed, says what did not, and ends with the
# line that .ci/run adds up.
passed=0
failed=0

pass() {
  passed=$((passed + 1))
}

fail() {
  failed=$((failed + 1))
  echo "-- $*"
}

finish() {
  echo "$passed passed, $failed failed"
  [ "$failed" = 0 ]
  exit
}
