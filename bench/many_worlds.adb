--  Keeps the last three values of channel 1 beside 19 words that stay as they are: worlds of some 40 words, as many as there are sequences of three values.
pragma Profile (Ravenscar);
with Ada.Real_Time; use Ada.Real_Time;
with Control_IO; use Control_IO;
package App is
   type Row is array (1 .. 19) of Integer;
   Constant_Row : Row;
   First : Integer := 0;
   Second : Integer := 0;
   Third : Integer := 0;
   task Keeper with Priority => 10;
end App;
package body App is
   task body Keeper is
      Next : Time := Clock;
   begin
      loop
         Third := Second;
         Second := First;
         First := Read (1);
         Next := Next + Milliseconds (10);
         delay until Next;
      end loop;
   end Keeper;
end App;
with App;
procedure Main is
begin
   null;
end Main;
