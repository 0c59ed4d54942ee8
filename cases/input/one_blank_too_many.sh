. "$(dirname "$0")/../parts/large.sh"
printf "" | filled 8388609
