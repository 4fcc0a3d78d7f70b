--  A watchdog: a worker tells a protected object each time that it is done, and a task that looks every 20 milliseconds writes whether it did so in time. Channel 1
--  is how many milliseconds the worker's next piece takes: where it takes too long the watchdog bites, and the worker starts again with a short one.
pragma Profile (Ravenscar);
pragma Partition_Elaboration_Policy (Sequential);
with Ada.Real_Time; use Ada.Real_Time;
with Control_IO; use Control_IO;
package App is
   Period   : constant Integer := 20;
   Patience : constant Integer := 2;
   Looks    : constant Integer := 12;

   protected Watchdog with Priority => 15 is
      procedure Kick;
      procedure Look (Bites : out Boolean);
      function Has_Bitten return Boolean;
      procedure Start_Again;
   private
      Missed : Integer := 0;
      Bitten : Boolean := False;
   end Watchdog;

   task Dog with Priority => 15;
   task Worker with Priority => 5;
end App;
package body App is
   protected body Watchdog is
      procedure Kick is
      begin
         Missed := 0;
      end Kick;

      procedure Look (Bites : out Boolean) is
      begin
         Missed := Missed + 1;
         Bites := Missed > Patience and not Bitten;
         if Bites then
            Bitten := True;
         end if;
      end Look;

      function Has_Bitten return Boolean is
      begin
         return Bitten;
      end Has_Bitten;

      procedure Start_Again is
      begin
         Bitten := False;
         Missed := 0;
      end Start_Again;
   end Watchdog;

   task body Dog is
      Next  : Time := Clock;
      Bites : Boolean;
   begin
      for I in 1 .. Looks loop
         Next := Next + Milliseconds (Period);
         delay until Next;
         Watchdog.Look (Bites);
         if Bites then
            Put ("bites", I);
         end if;
      end loop;
   end Dog;

   task body Worker is
      Next   : Time := Clock;
      Pieces : Integer := 0;
      Takes  : Integer;
   begin
      while Pieces < 10 loop
         Takes := Read (1);
         Next := Next + Milliseconds (Takes);
         delay until Next;
         if Watchdog.Has_Bitten then
            Put ("starts_again", Takes);
            Watchdog.Start_Again;
         else
            Pieces := Pieces + 1;
            Put ("done", Pieces);
            Watchdog.Kick;
         end if;
      end loop;
   end Worker;
end App;
with App;
procedure Main is
begin
   null;
end Main;
