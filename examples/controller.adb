--  A heater's controller: every 100 milliseconds it reads the temperature, channel 1, and the wanted one, channel 2, both in tenths of a degree, and opens or closes
--  a valve by half the difference. Every 250 milliseconds another task reports the lowest temperature so far.
pragma Profile (Ravenscar);
pragma Partition_Elaboration_Policy (Sequential);
with Ada.Real_Time; use Ada.Real_Time;
with Control_IO; use Control_IO;
package App is
   subtype Percent is Integer range 0 .. 100;
   Valve : Percent := 0;
   Lowest : Integer := 1_000;
   function Within (Wanted : Integer) return Percent;
   procedure Measure (Temperature : out Integer);
   task Control with Priority => 10;
   task Report with Priority => 5;
end App;
package body App is
   function Within (Wanted : Integer) return Percent is
   begin
      return (if Wanted < Percent'First then Percent'First elsif Wanted > Percent'Last then Percent'Last else Wanted);
   end Within;
   procedure Measure (Temperature : out Integer) is
   begin
      Temperature := Read (1);
      if Temperature < Lowest then
         Lowest := Temperature;
      end if;
   end Measure;
   task body Control is
      Temperature : Integer;
      Next : Time := Clock;
   begin
      for I in 1 .. 10 loop
         Measure (Temperature);
         Valve := Within (Valve + (Read (2) - Temperature) / 2);
         Put ("valve", Valve);
         Next := Next + Milliseconds (100);
         delay until Next;
      end loop;
   end Control;
   task body Report is
      Next : Time := Clock;
   begin
      for I in 1 .. 4 loop
         Put ("lowest", Lowest);
         Next := Next + Milliseconds (250);
         delay until Next;
      end loop;
   end Report;
end App;
with App;
procedure Main is
begin
   null;
end Main;
