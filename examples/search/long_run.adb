--  A filter of a level, channel 1: each ten milliseconds the level is taken down in a row of twelve places, where it is above 80; the row is emptied where it has
--  fallen to 80 or below. The defect: nothing looks whether the row is full, and a run of thirteen high levels passes its end.
pragma Profile (Ravenscar);
with Ada.Real_Time; use Ada.Real_Time;
with Control_IO; use Control_IO;
package App is
   type Row is array (1 .. 12) of Integer;
   Levels : Row;
   Count  : Integer := 0;
   task Filter with Priority => 10;
end App;
package body App is
   procedure Take_Down (Level : Integer) is
   begin
      if Level > 80 then
         Count := Count + 1;
         Levels (Count) := Level;
      else
         for I in 1 .. Count loop
            Levels (I) := 0;
         end loop;
         Count := 0;
      end if;
   end Take_Down;

   task body Filter is
      Next : Time := Clock;
   begin
      loop
         Take_Down (Read (1));
         Next := Next + Milliseconds (10);
         delay until Next;
      end loop;
   end Filter;
end App;
with App;
procedure Main is
begin
   null;
end Main;
