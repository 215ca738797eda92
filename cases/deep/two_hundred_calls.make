printf 'table t(p: i64)\na0 = columns.column(t, "p")\n'
for n in {1..199}; do printf 'a%d = columns.arith(a%d, "+", a0)\n' "$n" "$((n - 1))"; done
printf 'show a199\n%%%%\n%%table\np\n1\n2\n'
