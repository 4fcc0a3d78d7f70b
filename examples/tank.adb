--  Watches the level of a tank, channel 1, in percent: one task reads it every 10 milliseconds and writes an alarm above 80, another writes it every 15.
pragma Profile (Ravenscar);
pragma Partition_Elaboration_Policy (Sequential);
with Ada.Real_Time; use Ada.Real_Time;
with Control_IO; use Control_IO;
package App is
   Level : Integer := 0;
   task Watch with Priority => 10;
   task Report with Priority => 5;
end App;
package body App is
   task body Watch is
      Next : Time := Clock;
   begin
      for I in 1 .. 4 loop
         Level := Read (1);
         if Level > 80 then
            Put ("alarm", Level);
         end if;
         Next := Next + Milliseconds (10);
         delay until Next;
      end loop;
   end Watch;
   task body Report is
      Next : Time := Clock;
   begin
      for I in 1 .. 3 loop
         Put ("level", Level);
         Next := Next + Milliseconds (15);
         delay until Next;
      end loop;
   end Report;
end App;
with App;
procedure Main is
begin
   null;
end Main;
