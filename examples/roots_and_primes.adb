--  Integer square roots by Newton's method, and primes: one by one by division, and by the sieve of Eratosthenes.
pragma Profile (Ravenscar);
pragma Partition_Elaboration_Policy (Sequential);
with Control_IO; use Control_IO;
package App is
   Last : constant Integer := 1_000;

   subtype Candidate is Integer range 2 .. Last;
   type Sieve is array (Candidate) of Boolean;

   procedure Run;
end App;
package body App is
   Is_Crossed : Sieve;

   --  The greatest R with R * R <= N.
   procedure Square_Root (N : in Natural; R : out Natural) is
      Next : Natural := N / 2 + N mod 2;
   begin
      R := N;
      while Next < R loop
         R := Next;
         Next := (R + N / R) / 2;
      end loop;
   end Square_Root;

   function Has_Divisor (N : Positive; From : Positive) return Boolean is
   begin
      return From * From <= N and then (N mod From = 0 or else Has_Divisor (N, From + 1));
   end Has_Divisor;

   function Is_Prime (N : Integer) return Boolean is
   begin
      return N > 1 and then not Has_Divisor (N, 2);
   end Is_Prime;

   procedure Show_Roots is
      N    : Natural := 2;
      Root : Natural := 0;
   begin
      Square_Root (0, Root);
      Put ("root_of_0", Root);
      loop
         Square_Root (N, Root);
         Put ("root", Root);
         exit when N > 200_000_000;
         N := N * 7 + 3;
      end loop;
      Square_Root (2_147_395_600, Root);
      Put ("root_of_a_square", Root);
      Square_Root (2_147_395_599, Root);
      Put ("root_below_it", Root);
   end Show_Roots;

   procedure Cross_Out (Prime : Candidate) is
      Multiple : Integer := Prime * Prime;
   begin
      while Multiple <= Last loop
         Is_Crossed (Multiple) := True;
         Multiple := Multiple + Prime;
      end loop;
   end Cross_Out;

   procedure Fill_Sieve is
      Limit : Natural := 0;
   begin
      for N in Candidate'First .. Candidate'Last loop
         Is_Crossed (N) := False;
      end loop;
      Square_Root (Last, Limit);
      for N in 2 .. Limit loop
         if not Is_Crossed (N) then
            Cross_Out (N);
         end if;
      end loop;
   end Fill_Sieve;

   procedure Run is
      Count : Natural := 0;
      Sum   : Natural := 0;
      Twins : Natural := 0;
   begin
      Show_Roots;
      for N in 1 .. 30 loop
         if Is_Prime (N) then
            Put ("prime", N);
         end if;
      end loop;
      Fill_Sieve;
      for N in Candidate'First .. Candidate'Last loop
         if not Is_Crossed (N) then
            Count := Count + 1;
            Sum := Sum + N;
            Twins := (if N > 3 and then not Is_Crossed (N - 2) then Twins + 1 else Twins);
         end if;
      end loop;
      Put ("primes", Count);
      Put ("sum", Sum);
      Put ("twins", Twins);
      for N in reverse 990 .. Last loop
         if not Is_Crossed (N) then
            Put ("largest", N);
            exit;
         end if;
      end loop;
   end Run;
end App;
with App;
procedure Main is
begin
   App.Run;
end Main;
