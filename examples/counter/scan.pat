-- Over the scan path q0, q1, q2, q3: nine is shifted in, the counter counts to ten, and ten is shifted out, its highest bit first.
in ck;
in en;
in test;
in scin;
out q (3 downto 0) X;
out scout;

begin

< 0 ns> start : 0 1 1 1 ?0 ?0;
< 5 ns> in3 : 1 1 1 1 ?1 ?0;
< 10 ns> : 0 1 1 0 ?1 ?0;
< 15 ns> in2 : 1 1 1 0 ?2 ?0;
< 20 ns> : 0 1 1 0 ?2 ?0;
< 25 ns> in1 : 1 1 1 0 ?4 ?0;
< 30 ns> : 0 1 1 1 ?4 ?0;
< 35 ns> in0 : 1 1 1 1 ?9 ?1;
< 40 ns> : 0 1 0 0 ?9 ?1;
< 45 ns> count : 1 1 0 0 ?a ?1;
< 50 ns> out3 : 0 1 1 0 ?a ?1;
< 55 ns> : 1 1 1 0 ?4 ?0;
< 60 ns> out2 : 0 1 1 0 ?4 ?0;
< 65 ns> : 1 1 1 0 ?8 ?1;
< 70 ns> out1 : 0 1 1 0 ?8 ?1;
< 75 ns> : 1 1 1 0 ?0 ?0;
< 80 ns> out0 : 0 1 1 0 ?0 ?0;
end;
