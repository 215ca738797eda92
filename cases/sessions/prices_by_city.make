# a thousand records of five cities
cat <<'SCRIPT'
table t(city: vec[i8], units: i64, price: i64)
c = columns.column(t, "city")
u = columns.column(t, "units")
p = columns.column(t, "price")
m = columns.compare(u, ">=", 5L)
fc = columns.filter(c, m)
fu = columns.filter(u, m)
fp = columns.filter(p, m)
g = columns.group_sum(fc, fp)
d = vectors.dot(fu, fp)
show g, d
%%
%table
city,units,price
SCRIPT
awk 'BEGIN { for (i = 0; i < 1000; i++) printf "%s,%d,%d\n", substr("ABCDE", i % 5 + 1, 1), i % 10, i }'
