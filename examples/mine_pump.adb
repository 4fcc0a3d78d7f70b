--  The pump of a mine: channel 1 is the level of the water in centimetres, channel 2 the methane in the air in hundredths of a percent. The pump runs from a high
--  level on until a low one, but never where there is gas. Another level of the water is an interrupt, whose handler opens the entry at which a task waits for it;
--  at the methane a task looks each five milliseconds. An alarm is written where gas comes, by a task that waits for it at an entry.
pragma Profile (Ravenscar);
pragma Partition_Elaboration_Policy (Sequential);
with Ada.Real_Time; use Ada.Real_Time;
with Control_IO; use Control_IO;
package App is
   High_Water : constant Integer := 100;
   Low_Water  : constant Integer := 60;
   Gas_Limit  : constant Integer := 50;

   protected Water_Gauge is
      procedure Changed with Attach_Handler => 1;
      entry Wait (Level : out Integer);
   private
      Due  : Boolean := False;
      Last : Integer := 0;
   end Water_Gauge;

   protected Pump with Priority => 20 is
      procedure Water (Level : Integer);
      procedure Gas (Level : Integer);
      function Is_On return Boolean;
   private
      Wanted : Boolean := False;
      Safe   : Boolean := True;
      On     : Boolean := False;
   end Pump;

   protected Alarm with Priority => 21 is
      procedure Raise_It (Level : Integer);
      entry Wait (Level : out Integer);
   private
      Due  : Boolean := False;
      Last : Integer := 0;
   end Alarm;

   task Gas_Watch with Priority => 18;
   task Water_Watch with Priority => 16;
   task Alarm_Bell with Priority => 12;
   task Log with Priority => 4;
end App;
package body App is
   protected body Water_Gauge is
      procedure Changed is
      begin
         Last := Read (1);
         Due := True;
      end Changed;

      entry Wait (Level : out Integer) when Due is
      begin
         Level := Last;
         Due := False;
      end Wait;
   end Water_Gauge;

   protected body Alarm is
      procedure Raise_It (Level : Integer) is
      begin
         Last := Level;
         Due := True;
      end Raise_It;

      entry Wait (Level : out Integer) when Due is
      begin
         Level := Last;
         Due := False;
      end Wait;
   end Alarm;

   protected body Pump is
      procedure Set is
         Now : Boolean := Wanted and then Safe;
      begin
         if Now /= On then
            On := Now;
            Put ("pump", (if On then 1 else 0));
         end if;
      end Set;

      procedure Water (Level : Integer) is
      begin
         if Level >= High_Water then
            Wanted := True;
         elsif Level <= Low_Water then
            Wanted := False;
         end if;
         Set;
      end Water;

      procedure Gas (Level : Integer) is
      begin
         if Level > Gas_Limit and then Safe then
            Alarm.Raise_It (Level);
         end if;
         Safe := Level <= Gas_Limit;
         Set;
      end Gas;

      function Is_On return Boolean is
      begin
         return On;
      end Is_On;
   end Pump;

   task body Gas_Watch is
      Next : Time := Clock;
   begin
      for I in 1 .. 20 loop
         Pump.Gas (Read (2));
         Next := Next + Milliseconds (5);
         delay until Next;
      end loop;
   end Gas_Watch;

   task body Water_Watch is
      Level : Integer;
   begin
      loop
         Water_Gauge.Wait (Level);
         Pump.Water (Level);
      end loop;
   end Water_Watch;

   task body Alarm_Bell is
      Level : Integer;
   begin
      loop
         Alarm.Wait (Level);
         Put ("gas", Level);
      end loop;
   end Alarm_Bell;

   task body Log is
      Next : Time := Clock;
   begin
      for I in 1 .. 4 loop
         Put ("on", (if Pump.Is_On then 1 else 0));
         Next := Next + Milliseconds (25);
         delay until Next;
      end loop;
   end Log;
end App;
with App;
procedure Main is
begin
   null;
end Main;
