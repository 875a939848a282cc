#!/bin/sh
# Prints how long the built program takes to read, draw and write the scenes of scenes.py, as ratios of one run, and where Mesa's off-screen OpenGL
# is installed (Debian's libosmesa6-dev) how its two software renderers do on the same scenes. Build the program first:
#     cd crates/render_cli && rt run -- render < ../../examples/red.rcs > /dev/null
set -eu
here=$(cd "$(dirname "$0")" && pwd)
program=$(python3 -c 'import sys
tools, *given = sys.argv[1:]
sys.argv[0] = "run.sh"
sys.path.append(tools)
from program import built
print(built(*given[:1]))' "$here/../../tools" "$@")
work=$(mktemp -d)
trap 'rm -rf "$work"' EXIT

if ! cc -O2 -o "$work/mesa" "$here/mesa.c" -lOSMesa -lm 2> /dev/null; then
    echo "without Mesa: install libosmesa6-dev to compare" >&2
fi

python3 "$here/measure.py" "$program" "$here/scenes.py" "$work"
echo
echo "captured scenes of real programs:"
python3 "$here/real_programs.py" "$program" "$work/mesa"
