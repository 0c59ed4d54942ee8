. "$(dirname "$0")/../parts/large.sh"
nested '(rAdd(rNum 1)' ')' 524287
