# 200,001 numbers of 1 to 19 digits and their signs, the least and the greatest of 64 bits among them.
printf '|v: vec[i64]| v\n%%%%\n%%value\n'
bash "$(dirname "${BASH_SOURCE[0]}")/numbers_of_changing_length.want"
