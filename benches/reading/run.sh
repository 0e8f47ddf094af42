#!/bin/sh
# How fast 100,000 small requests are read, or as many as the argument says, by how many bytes the reader hands over
# at a call, compared with serde_json alone on the same lines. Speeds are in bytes a microsecond of processor time;
# the last column is the time of reading as a percentage of serde_json's. It needs `rt` on the path.
set -e
cd "$(dirname "$0")"
requests="${1:-100000}"
. ../measure.sh
printf 'bytes at a call\trequests\tserde_json\tpercent of the time\n'
for block in 4 16 256 4096 65536; do
    "$built" reading "$block" "$requests"
done
