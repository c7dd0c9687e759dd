#!/bin/sh
# Every item is gripped at its top.
while read -r request; do
    echo yield top
done
