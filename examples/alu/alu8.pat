-- Each operation on two pairs of numbers.
in a (7 downto 0) X;
in b (7 downto 0) X;
in op (2 downto 0);
out y (7 downto 0) X;
out carry;
out zero;

begin

< 0 ns> add1 : 05 03 000 ?08 ?0 ?0;
< 10 ns> sub1 : 05 03 001 ?02 ?1 ?0;
< 20 ns> and1 : 05 03 010 ?01 ?* ?0;
< 30 ns> or1 : 05 03 011 ?07 ?* ?0;
< 40 ns> xor1 : 05 03 100 ?06 ?* ?0;
< 50 ns> not1 : 05 03 101 ?fa ?* ?0;
< 60 ns> take1 : 05 03 110 ?03 ?* ?0;
< 70 ns> none1 : 05 03 111 ?00 ?* ?1;
< 80 ns> add2 : c8 64 000 ?2c ?1 ?0;
< 90 ns> sub2 : c8 64 001 ?64 ?1 ?0;
< 100 ns> and2 : c8 64 010 ?40 ?* ?0;
< 110 ns> or2 : c8 64 011 ?ec ?* ?0;
< 120 ns> xor2 : c8 64 100 ?ac ?* ?0;
< 130 ns> not2 : c8 64 101 ?37 ?* ?0;
< 140 ns> take2 : c8 64 110 ?64 ?* ?0;
< 150 ns> none2 : c8 64 111 ?00 ?* ?1;

end;
