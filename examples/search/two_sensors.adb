--  Two sensors of a vessel's pressure, channels 1 and 2. Each ten milliseconds the guard reads both: where both are at 100 it counts a strike, where neither is it
--  takes one back, and at the third it would open the valve. The defect: a fourth strike in a row has no place in Strikes.
pragma Profile (Ravenscar);
with Ada.Real_Time; use Ada.Real_Time;
with Control_IO; use Control_IO;
package App is
   subtype Strike_Count is Integer range 0 .. 3;
   Strikes : Strike_Count := 0;
   task Guard with Priority => 10;
end App;
package body App is
   procedure Look (One : Integer; Other : Integer) is
   begin
      if One = 100 and Other = 100 then
         Strikes := Strikes + 1;
         Put ("strike", Strikes);
      elsif One < 100 and Other < 100 and Strikes > 0 then
         Strikes := Strikes - 1;
      end if;
   end Look;

   task body Guard is
      Next : Time := Clock;
   begin
      loop
         Look (Read (1), Read (2));
         Next := Next + Milliseconds (10);
         delay until Next;
      end loop;
   end Guard;
end App;
with App;
procedure Main is
begin
   null;
end Main;
