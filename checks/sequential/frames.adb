--  Calls down to the 128th frame: main's is the first one.
pragma Profile (Ravenscar);
pragma Partition_Elaboration_Policy (Sequential);
with Control_IO; use Control_IO;
package App is
   procedure Run;
   procedure Even (N : Natural);
end App;
package body App is
   Deepest : Natural := 0;

   procedure Down (Level : Positive) is
      Before : Natural := Deepest;
   begin
      Deepest := Level;
      if Level < 128 then
         Down (Level + 1);
      end if;
      Put ("level", Level * 100 + Before);
   end Down;

   function Sum_To (N : Natural) return Natural is
   begin
      return (if N = 0 then 0 else N + Sum_To (N - 1));
   end Sum_To;

   function Fibonacci (N : Natural) return Natural is
   begin
      return (if N < 2 then N else Fibonacci (N - 1) + Fibonacci (N - 2));
   end Fibonacci;

   procedure Odd (N : Natural) is
   begin
      if N = 0 then
         Put ("odd", Deepest);
      else
         Even (N - 1);
      end if;
   end Odd;

   procedure Even (N : Natural) is
   begin
      if N = 0 then
         Put ("even", Deepest);
      else
         Odd (N - 1);
      end if;
   end Even;

   procedure Run is
   begin
      Down (3);
      Put ("deepest", Deepest);
      Put ("sum", Sum_To (125));
      Put ("fibonacci", Fibonacci (15));
      Even (125);
      Even (124);
   end Run;
end App;
with App;
procedure Main is
begin
   App.Run;
end Main;
