# Sourced by the scripts of this folder: they run at the top of the repository, in the C locale, with a folder of their
# own that goes away again.
export LC_ALL=C
cd "$(dirname "$(readlink -f "${BASH_SOURCE[0]}")")/.."
top=$PWD
folder=$(mktemp -d)
trap 'rm -rf "$folder"' EXIT
. "$top/contrib/programs.sh"
