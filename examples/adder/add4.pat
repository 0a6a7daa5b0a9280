-- Sums of four bits with both carries; the last pattern only shows what comes.
in a (3 downto 0) X;
in b (3 downto 0) X;
in ci;
out co;
out s (3 downto 0) X;

begin

< 0 ns> zero : 0 0 0 ?0 ?0;
< + 10 ns> : 1 1 0 ?0 ?2;
< + 10 ns> : 3 5 1 ?0 ?9;
< + 10 ns> ripple : 7 1 0 ?0 ?8;
< + 10 ns> : 8 8 0 ?1 ?0;
< + 10 ns> over : f 1 0 ?1 ?0;
< + 10 ns> most : f f 1 ?1 ?f;
< + 10 ns> : a 5 0 ?0 ?f;
< + 10 ns> : a 5 1 ?1 ?0;
< + 10 ns> : 9 6 1 ?1 ?0;
< + 10 ns> : c 7 0 ?1 ?3;
< + 10 ns> : 6 6 1 ?0 ?d;
< + 10 ns> shown : b d 1 ?* ?*;
end;
