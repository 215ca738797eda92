# Lists of 65,535, 65,536 and 65,537 numbers: the first is written whole, the others in pieces.
cat << 'W'
|v: vec[i64]| {result(for(v, vecbuilder[i64], |b,i,x| if(x < 65535L, merge(b, x), b))),
  result(for(v, vecbuilder[i64], |b,i,x| if(x < 65536L, merge(b, 0L - x), b))), v}
%%
%value
W
awk 'BEGIN { for (i = 0; i < 65537; i++) printf "%s%d", i == 0 ? "[" : ",", i; print "]" }'
