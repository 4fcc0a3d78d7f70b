--  Three periodic tasks, the more often released the higher their priority. When they are released, in milliseconds:
--
--     Fast    0  10  20  30  40  50  60  70
--     Middle  0      20      40      60
--     Slow    0              40
--
--  Releases at one time go by priority. Each task ends behind its last period, the program with the last of them.
pragma Profile (Ravenscar);
pragma Partition_Elaboration_Policy (Sequential);
with Ada.Real_Time; use Ada.Real_Time;
with Control_IO; use Control_IO;
package App is
   Start : Time := Clock;
   task Fast with Priority => 12;
   task Middle with Priority => 11;
   task Slow with Priority => 10;
   function Release (Period : Time_Span; Number : Integer) return Time;
end App;
package body App is
   --  When this release is due, the first one at the start: a span can't be multiplied, so it is added again and again.
   function Release (Period : Time_Span; Number : Integer) return Time is
   begin
      return (if Number <= 1 then Start else Release (Period, Number - 1) + Period);
   end Release;
   task body Fast is
   begin
      for I in 1 .. 8 loop
         Put ("release", I);
         delay until Release (Milliseconds (10), I + 1);
      end loop;
   end Fast;
   task body Middle is
   begin
      for I in 1 .. 4 loop
         Put ("release", I);
         delay until Release (Milliseconds (20), I + 1);
      end loop;
   end Middle;
   task body Slow is
   begin
      for I in 1 .. 2 loop
         Put ("release", I);
         delay until Release (Milliseconds (40), I + 1);
      end loop;
   end Slow;
end App;
with App;
procedure Main is
begin
   null;
end Main;
