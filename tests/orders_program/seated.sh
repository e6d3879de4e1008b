# seated.sh FORM N: the program FORM.mac for each of N philosophers round a table, FORM.0.mac and so on. Number k has fork k at its
# left and the next one at its right; in_order.mac has them by their numbers. The names of the files are written.
for k in $(seq 0 $(($2 - 1))); do
    first=$k second=$(((k + 1) % $2))
    if [ "$1" = in_order ] && [ $first -gt $second ]; then first=$second second=$k; fi
    sed "s/FORK1/F$first/; s/FORK2/F$second/; s/LEVEL1/$((first + 1))/; s/LEVEL2/$((second + 1))/" "$1.mac" >"$1.$k.mac"
    echo "$1.$k.mac"
done
