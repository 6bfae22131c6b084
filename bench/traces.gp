\\ The traces of T_n for n up to 30 coprime to N at twelve levels, from PARI/GP: a line for each level with N, the
\\ dimension, and n:trace. T_q is mshecke for a prime q; for composite n mshecke is another operator, so T_n is made by
\\ T_mn = T_m T_n for coprime m and n, and by T_r = T_q T_(r/q) - q T_(r/qq) for a power r of q.
\\ gp -qf -s 64000000 < bench/traces.gp > bench/traces.txt
hecke(M, n) = {
  if(n == 1, return(matid(msdim(M))));
  my(F = factor(n)); my(q = F[1, 1]); my(r = q^F[1, 2]);
  if(r < n, return(hecke(M, r) * hecke(M, n / r)));
  if(r == q, return(mshecke(M, q)));
  hecke(M, q) * hecke(M, r / q) - q * hecke(M, r / q^2)
};
foreach([11, 15, 23, 37, 45, 49, 60, 77, 100, 169, 389, 420], N, M = msinit(N, 2); print1(N, " ", msdim(M)); for(n = 1, 30, if(gcd(n, N) == 1, print1(" ", n, ":", trace(hecke(M, n))))); print());
