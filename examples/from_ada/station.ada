--  A filling station as it is written in Ada 2012 under the Ravenscar profile, for GNAT alone: station.adb is the same program for adarun.
pragma Profile (Ravenscar);
with Ada.Real_Time; use Ada.Real_Time;
with System;
package Station is
   type State is (Idle, Filling, Full);
   type Level is range 0 .. 100;
   type Reading is record
      Tank  : Level := 0;
      Valve : State := Idle;
   end record;
   Period : constant Time_Span := Milliseconds (10);

   protected Board is
      pragma Priority (System.Priority'Last);
      procedure Post (Value : Reading);
      entry Wait (Value : out Reading);
   private
      Latest : Reading;
      Posted : Boolean := False;
   end Board;

   task Filler is
      pragma Priority (10);
   end Filler;

   task Display is
      pragma Priority (5);
   end Display;
end Station;

with Ada.Text_IO; use Ada.Text_IO;
package body Station is
   protected body Board is
      procedure Post (Value : Reading) is
      begin
         Latest := Value;
         Posted := True;
      end Post;

      entry Wait (Value : out Reading) when Posted is
      begin
         Value := Latest;
         Posted := False;
      end Wait;
   end Board;

   function Next_State (Now : State; Tank : Level) return State is
   begin
      case Now is
         when Idle =>
            return Filling;
         when Filling =>
            return (if Tank >= 60 then Full else Filling);
         when Full =>
            return Full;
      end case;
   end Next_State;

   task body Filler is
      Next : Time := Clock + Period;
      Now  : Reading := (Tank => 0, Valve => Idle);
   begin
      for Turn in 1 .. 5 loop
         delay until Next;
         Now.Valve := Next_State (Now => Now.Valve, Tank => Now.Tank);
         if Now.Valve = Filling then
            Now.Tank := Now.Tank + 20;
         end if;
         Board.Post (Value => Now);
         Next := Next + Period;
      end loop;
   end Filler;

   task body Display is
      Seen : Reading;
   begin
      for Turn in 1 .. 5 loop
         Board.Wait (Seen);
         Put_Line (State'Image (Seen.Valve) & Level'Image (Seen.Tank));
      end loop;
   end Display;
end Station;

with Station;
procedure Main is
begin
   null;
end Main;
