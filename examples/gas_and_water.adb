--  A pump that runs while the water is high and the air is safe: one task reads the gas sensor on channel 2 each 80 milliseconds, another one of lower priority the
--  water mark on channel 1 each 50, and both tell the controller of the pump.
pragma Profile (Ravenscar);
with Ada.Real_Time; use Ada.Real_Time;
with Control_IO; use Control_IO;
package App is
   type Gas_Reading is range 0 .. 1023;
   Gas_High : constant Gas_Reading := 400;
   type Motor_State is range 0 .. 1;
   On  : constant Motor_State := 0;
   Off : constant Motor_State := 1;
   type Water_Mark is range 0 .. 1;
   Low  : constant Water_Mark := 0;
   High : constant Water_Mark := 1;
   protected Controller with Priority => 25 is
      procedure Set (Level : Water_Mark);
      procedure Not_Safe;
      procedure Is_Safe;
   private
      Motor : Motor_State := Off;
      Safe  : Boolean := True;
   end Controller;
   task Monitor with Priority => 20;
   task Water with Priority => 15;
end App;
package body App is
   protected body Controller is
      procedure Set (Level : Water_Mark) is
      begin
         if Level = High and Safe then
            Motor := On;
         elsif Level = Low then
            Motor := Off;
         end if;
         Put ("motor", Integer (Motor));
      end Set;
      procedure Not_Safe is
      begin
         Safe := False;
         Motor := Off;
      end Not_Safe;
      procedure Is_Safe is
      begin
         Safe := True;
      end Is_Safe;
   end Controller;
   task body Monitor is
      Next : Time := Clock;
      Period : constant Time_Span := Milliseconds (80);
      Present : Gas_Reading;
   begin
      for I in 1 .. 4 loop
         Present := Gas_Reading (Read (2));
         if Present > Gas_High then
            Controller.Not_Safe;
         else
            Controller.Is_Safe;
         end if;
         Next := Next + Period;
         delay until Next;
      end loop;
   end Monitor;
   task body Water is
      Next : Time := Clock;
   begin
      for I in 1 .. 4 loop
         Controller.Set ((if Read (1) = 1 then High else Low));
         Next := Next + Milliseconds (50);
         delay until Next;
      end loop;
   end Water;
end App;
with App;
procedure Main is
begin
   null;
end Main;
