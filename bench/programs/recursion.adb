--  The first 30 Fibonacci numbers, by recursion.
pragma Profile (Ravenscar);
with Control_IO; use Control_IO;
package App is
   procedure Run;
end App;
package body App is
   function Fibonacci (N : Positive) return Positive is
   begin
      return (if N <= 2 then 1 else Fibonacci (N - 1) + Fibonacci (N - 2));
   end Fibonacci;

   procedure Run is
   begin
      for N in 1 .. 30 loop
         Put ("number", Fibonacci (N));
      end loop;
   end Run;
end App;
with App;
procedure Main is
begin
   App.Run;
end Main;
