--  A greenhouse: two sensors read the warmth and the moisture of the air at periods of their own, a protected object keeps the last four readings of
--  each, and a task opens and closes the vents.
pragma Profile (Ravenscar);
pragma Partition_Elaboration_Policy (Sequential);
package Climate is
   type Quantity is (Warmth, Moisture);
   type Vent is (Closed, Half_Open, Wide_Open);
   subtype Percent is Integer range 0 .. 100;
   function Vent_For (Degrees : Integer; Wet : Percent) return Vent;
end Climate;
package body Climate is
   function Vent_For (Degrees : Integer; Wet : Percent) return Vent is
      Result : Vent := Closed;
   begin
      if Degrees >= 30 then
         return Wide_Open;
      elsif Degrees >= 24 then
         Result := Half_Open;
      end if;
      if Wet > 80 and then Result /= Vent'Last then
         Result := Vent'Succ (Result);
      end if;
      return Result;
   end Vent_For;
end Climate;
with Climate; use Climate;
package Readings is
   Kept : constant := 2 ** 2;
   type Slot is mod Kept;
   type Values is array (Slot) of Integer;
   protected Store is
      pragma Priority (20);
      procedure Keep (What : Quantity; Value : Integer);
      function Mean (What : Quantity) return Integer;
   private
      Degrees, Wet          : Values := (others => 20);
      Next_Degree, Next_Wet : Slot := 0;
   end Store;
end Readings;
package body Readings is
   protected body Store is
      procedure Keep (What : Quantity; Value : Integer) is
      begin
         case What is
            when Warmth =>
               Degrees (Next_Degree) := Value;
               Next_Degree := Next_Degree + 1;
            when Moisture =>
               Wet (Next_Wet) := Value;
               Next_Wet := Next_Wet + 1;
         end case;
      end Keep;

      function Mean (What : Quantity) return Integer is
         Sum : Integer := 0;
      begin
         for I in Slot loop
            Sum := Sum + (if What = Warmth then Degrees (I) else Wet (I));
         end loop;
         return Sum / Kept;
      end Mean;
   end Store;
end Readings;
with System;
with Climate;
package Devices is
   task type Sensor (What : Climate.Quantity; Channel, Period : Positive; Prio : System.Priority) with Priority => Prio;
   Thermometer : Sensor (Climate.Warmth, 1, 10, 12);
   Hygrometer  : Sensor (What => Climate.Moisture, Channel => 2, Period => 20, Prio => 11);
   task Control with Priority => 5;
end Devices;
with Ada.Real_Time; use Ada.Real_Time;
with Ada.Text_IO;   use Ada.Text_IO;
with Control_IO;
with Readings;
package body Devices is
   use type Climate.Vent;
   task body Sensor is
      Next : Time := Clock;
   begin
      for Turn in 1 .. 160 / Period loop
         Readings.Store.Keep (What, Value => Control_IO.Read (Channel));
         Next := Next + Milliseconds (Period);
         delay until Next;
      end loop;
   end Sensor;

   task body Control is
      Next    : Time := Clock;
      Setting : Climate.Vent := Climate.Closed;
      Wanted  : Climate.Vent;
   begin
      for Turn in 1 .. 7 loop
         Wanted := Climate.Vent_For (Readings.Store.Mean (Climate.Warmth), Readings.Store.Mean (Climate.Moisture));
         if Wanted /= Setting then
            Setting := Wanted;
            Put_Line ("vents " & Climate.Vent'Image (Setting));
         end if;
         Next := Next + Milliseconds (25);
         delay until Next;
      end loop;
      Put_Line ("mean warmth" & Integer'Image (Readings.Store.Mean (Climate.Warmth)));
   end Control;
end Devices;
with Devices;
procedure Greenhouse is
begin
   null;
end Greenhouse;
