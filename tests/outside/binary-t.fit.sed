# Further changes to t/binary.t: sizes that fit the store, and as many keys.
s/7900\.\.8100/820..1020/
s/1024\*1024)) \. "x"/1024)) . "x"/
s/\$i = 1900; \$i < 2100/$i = 925; $i < 1025/
s/2024/900/g
s/2096/972/
