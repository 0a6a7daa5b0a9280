-- The right digits open the lock; three wrong ones in a row block it until reset.
in ck;
in reset;
in press;
in digit (3 downto 0) X;
out opened;
out blocked;
out errors (1 downto 0);

begin

< 0 ns> : 0 1 0 0 ?* ?* ?*;
< 5 ns> reset : 1 1 0 0 ?0 ?0 ?00;
< 10 ns> : 0 0 1 2 ?0 ?0 ?00;
< 15 ns> two : 1 0 1 2 ?0 ?0 ?00;
< 20 ns> : 0 0 0 9 ?0 ?0 ?00;
< 25 ns> waits : 1 0 0 9 ?0 ?0 ?00;
< 30 ns> : 0 0 1 7 ?0 ?0 ?00;
< 35 ns> seven : 1 0 1 7 ?0 ?0 ?00;
< 40 ns> : 0 0 1 4 ?0 ?0 ?00;
< 45 ns> four : 1 0 1 4 ?1 ?0 ?00;
< 50 ns> : 0 0 1 9 ?1 ?0 ?00;
< 55 ns> stays_open : 1 0 1 9 ?1 ?0 ?00;
< 60 ns> : 0 1 1 2 ?1 ?0 ?00;
< 65 ns> closed : 1 1 1 2 ?0 ?0 ?00;
< 70 ns> : 0 0 1 5 ?0 ?0 ?00;
< 75 ns> wrong : 1 0 1 5 ?0 ?0 ?01;
< 80 ns> : 0 0 1 2 ?0 ?0 ?01;
< 85 ns> two_again : 1 0 1 2 ?0 ?0 ?00;
< 90 ns> : 0 0 1 2 ?0 ?0 ?00;
< 95 ns> wrong_one : 1 0 1 2 ?0 ?0 ?01;
< 100 ns> : 0 0 1 7 ?0 ?0 ?01;
< 105 ns> wrong_two : 1 0 1 7 ?0 ?0 ?10;
< 110 ns> : 0 0 1 f ?* ?* ?*;
< 115 ns> wrong_three : 1 0 1 f ?0 ?1 ?11;
< 120 ns> : 0 0 1 2 ?* ?* ?*;
< 125 ns> blocked_now : 1 0 1 2 ?0 ?1 ?11;
< 130 ns> : 0 0 1 2 ?0 ?1 ?11;
< 135 ns> no_way : 1 0 1 2 ?0 ?1 ?11;
< 140 ns> : 0 1 0 0 ?0 ?1 ?11;
< 145 ns> released : 1 1 0 0 ?0 ?0 ?00;
< 150 ns> : 0 0 1 2 ?0 ?0 ?00;
< 155 ns> again2 : 1 0 1 2 ?0 ?0 ?00;
< 160 ns> : 0 0 1 7 ?0 ?0 ?00;
< 165 ns> again7 : 1 0 1 7 ?0 ?0 ?00;
< 170 ns> : 0 0 1 4 ?0 ?0 ?00;
< 175 ns> again4 : 1 0 1 4 ?1 ?0 ?00;
end;
