--  A hundred million additions in one loop.
pragma Profile (Ravenscar);
with Control_IO; use Control_IO;
package App is
   procedure Run;
end App;
package body App is
   procedure Run is
      Sum : Integer := 0;
   begin
      for I in 1 .. 100_000_000 loop
         Sum := Sum + I;
      end loop;
      Put ("sum", Sum);
   end Run;
end App;
with App;
procedure Main is
begin
   App.Run;
end Main;
