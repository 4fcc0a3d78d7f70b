--  The primes up to 1,000 by the sieve of Eratosthenes, 3,000 times.
pragma Profile (Ravenscar);
with Control_IO; use Control_IO;
package App is
   subtype Candidate is Integer range 2 .. 1_000;
   type Sieve is array (Candidate) of Boolean;
   procedure Run;
end App;
package body App is
   Is_Crossed : Sieve;

   procedure Count_Primes (Count : out Natural) is
      Multiple : Integer;
   begin
      for N in 2 .. 1_000 loop
         Is_Crossed (N) := False;
      end loop;
      for N in 2 .. 1_000 loop
         if not Is_Crossed (N) then
            Count := Count + 1;
            Multiple := N * N;
            while Multiple <= 1_000 loop
               Is_Crossed (Multiple) := True;
               Multiple := Multiple + N;
            end loop;
         end if;
      end loop;
   end Count_Primes;

   procedure Run is
      Count : Natural := 0;
   begin
      for Round in 1 .. 3_000 loop
         Count_Primes (Count);
      end loop;
      Put ("primes", Count);
   end Run;
end App;
with App;
procedure Main is
begin
   App.Run;
end Main;
