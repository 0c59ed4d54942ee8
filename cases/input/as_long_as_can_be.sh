. "$(dirname "$0")/../parts/large.sh"
small | filled 8388608
