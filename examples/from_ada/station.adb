--  The filling station of station.ada in the language of adarun.
pragma Profile (Ravenscar);
with Ada.Real_Time; use Ada.Real_Time;
with Control_IO; use Control_IO;
package Station is
   --  An enumeration: a subtype with a constant for each value.
   subtype State is Integer range 0 .. 2;
   Idle    : constant State := 0;
   Filling : constant State := 1;
   Full    : constant State := 2;
   type Level is range 0 .. 100;
   --  Components have no defaults: objects are given values by statements.
   type Reading is record
      Tank  : Level;
      Valve : State;
   end record;

   --  A ceiling is an aspect, and a number.
   protected Board with Priority => 10 is
      procedure Post (Value : Reading);
      entry Wait (Value : out Reading);
   private
      Latest : Reading;
      Posted : Boolean := False;
   end Board;

   task Filler with Priority => 10;
   task Display with Priority => 5;
end Station;
package body Station is
   protected body Board is
      procedure Post (Value : Reading) is
      begin
         Latest := Value;
         Posted := True;
      end Post;

      entry Wait (Value : out Reading) when Posted is
      begin
         Value := Latest;
         Posted := False;
      end Wait;
   end Board;

   --  A function with statements: a procedure with a parameter of mode out.
   procedure Next_State (Now : State; Tank : Level; Next : out State) is
   begin
      case Now is
         when 0 =>
            Next := Filling;
         when 1 =>
            Next := (if Tank >= 60 then Full else Filling);
         when 2 =>
            Next := Full;
         when others =>
            Next := Now;
      end case;
   end Next_State;

   task body Filler is
      --  An initial value of a task body is static or Clock: the first period is added by a statement.
      Next : Time := Clock;
      --  An aggregate: an assignment for each component.
      Now  : Reading;
   begin
      Next := Next + Milliseconds (10);
      Now.Tank := 0;
      Now.Valve := Idle;
      for Turn in 1 .. 5 loop
         delay until Next;
         Next_State (Now.Valve, Now.Tank, Now.Valve);
         if Now.Valve = Filling then
            Now.Tank := Now.Tank + 20;
         end if;
         Board.Post (Now);
         Next := Next + Milliseconds (10);
      end loop;
   end Filler;

   task body Display is
      Seen : Reading;
   begin
      for Turn in 1 .. 5 loop
         Board.Wait (Seen);
         --  'Image and Put_Line: a label and a number in each line.
         Put ("valve", Seen.Valve);
         Put ("tank", Integer (Seen.Tank));
      end loop;
   end Display;
end Station;
with Station;
procedure Main is
begin
   null;
end Main;
