--  Sixteen tasks that take turns, 100,000 each.
pragma Profile (Ravenscar);
with Ada.Real_Time; use Ada.Real_Time;
with Control_IO; use Control_IO;
package App is
   Turns : Integer := 0;
   procedure Take_Turns;
   task T1;
   task T2;
   task T3;
   task T4;
   task T5;
   task T6;
   task T7;
   task T8;
   task T9;
   task T10;
   task T11;
   task T12;
   task T13;
   task T14;
   task T15;
   task T16;
end App;
package body App is
   procedure Take_Turns is
   begin
      for Turn in 1 .. 100_000 loop
         Turns := Turns + 1;
         delay until Clock;
      end loop;
      Put ("turns", Turns);
   end Take_Turns;
   task body T1 is
   begin
      Take_Turns;
   end T1;
   task body T2 is
   begin
      Take_Turns;
   end T2;
   task body T3 is
   begin
      Take_Turns;
   end T3;
   task body T4 is
   begin
      Take_Turns;
   end T4;
   task body T5 is
   begin
      Take_Turns;
   end T5;
   task body T6 is
   begin
      Take_Turns;
   end T6;
   task body T7 is
   begin
      Take_Turns;
   end T7;
   task body T8 is
   begin
      Take_Turns;
   end T8;
   task body T9 is
   begin
      Take_Turns;
   end T9;
   task body T10 is
   begin
      Take_Turns;
   end T10;
   task body T11 is
   begin
      Take_Turns;
   end T11;
   task body T12 is
   begin
      Take_Turns;
   end T12;
   task body T13 is
   begin
      Take_Turns;
   end T13;
   task body T14 is
   begin
      Take_Turns;
   end T14;
   task body T15 is
   begin
      Take_Turns;
   end T15;
   task body T16 is
   begin
      Take_Turns;
   end T16;
end App;
with App;
procedure Main is
begin
   null;
end Main;
