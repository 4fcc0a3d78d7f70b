--  A worker whose piece of work takes as many milliseconds as channel 1 says counts the pieces that ended after their deadlines, 10 milliseconds after each was due.
pragma Profile (Ravenscar);
with Ada.Real_Time; use Ada.Real_Time;
with Control_IO; use Control_IO;
package App is
   Deadline_Missed : exception;
   task Worker with Priority => 10;
end App;
package body App is
   task body Worker is
      Next     : Time := Clock;
      Deadline : Time;
      Misses   : Natural := 0;
   begin
      for I in 1 .. 9 loop
         begin
            Deadline := Next + Milliseconds (10);
            delay until Next + Milliseconds (Read (1));
            if Clock > Deadline then
               raise Deadline_Missed;
            end if;
         exception
            when Deadline_Missed =>
               Misses := Misses + 1;
               Put ("miss", I);
         end;
         Next := Next + Milliseconds (10);
         delay until Next;
      end loop;
      Put ("misses", Misses);
   end Worker;
end App;
with App;
procedure Main is
begin
   null;
end Main;
