# What the scripts beside it need, for them to source: sets `here`, and `program` by the first
# argument. Ends with status 77 where a tool of the package mtd-utils is missing that TOOLS names.
here=$(cd "$(dirname "${BASH_SOURCE[0]}")" && pwd)
program=$(realpath "${1:-$here/../../crates/jffs2_image/out/jffs2_image}")
PATH=$PATH:/usr/sbin:/sbin
for tool in $TOOLS; do
    if ! command -v "$tool" > /dev/null; then
        echo "$tool is missing: apt-get install mtd-utils"
        exit 77
    fi
done
if [[ ! -x $program ]]; then
    echo "$program is no program: build it by rt run in crates/jffs2_image, or name another"
    exit 1
fi
