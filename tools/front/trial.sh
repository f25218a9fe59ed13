#!/bin/sh
# In place of a program, where the kit hands out no module of it: tools/front/trial.py runs it by `rt try`.
exec python3 "$(dirname "$0")/.." trial "$@"
