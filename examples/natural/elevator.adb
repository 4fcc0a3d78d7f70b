--  An elevator with six floors: passengers press buttons, a task moves the cabin to the nearest floor whose button is lit, and waits where none is.
pragma Profile (Ravenscar);
with Ada.Synchronous_Task_Control; use Ada.Synchronous_Task_Control;
package Building is
   type Floor is range 0 .. 5;
   No_Stop : exception;
   Called  : Suspension_Object;
   procedure Press (To : Floor; Urgent : Boolean);
private
   type Lights is array (Floor) of Boolean;
   protected Panel with Priority => 16#14# is
      procedure Light (To : Floor);
      procedure Put_Out (To : Floor);
      function Number_Lit return Natural;
      function Nearest (Place : Floor) return Floor;
   private
      Lit   : Lights := (others => False);
      Count : Natural := 0;
   end Panel;
   task Cabin with Priority => 10;
end Building;
with Ada.Real_Time; use Ada.Real_Time;
with Ada.Text_IO;
package body Building is
   Per_Floor : constant Time_Span := Milliseconds (500);
   function Between (A, B : Floor) return Natural is (if A < B then Natural (B - A) else Natural (A - B));
   protected body Panel is
      procedure Light (To : Floor) is
      begin
         Count := Count + (if Lit (To) then 0 else 1);
         Lit (To) := True;
      end Light;
      procedure Put_Out (To : Floor) is
      begin
         Lit (To) := False;
         Count := Count - 1;
      end Put_Out;
      function Number_Lit return Natural is (Count);
      function Nearest (Place : Floor) return Floor is
         Best : Floor := Place;
         Way  : Natural := Natural'Last;
      begin
         for F in Lit'Range loop
            if Lit (F) and then Between (F, Place) < Way then
               Best := F;
               Way := Between (F, Place);
            end if;
         end loop;
         return Best;
      end Nearest;
   end Panel;

   procedure Press (To : Floor; Urgent : Boolean) is
   begin
      if To in 2 | 4 and not Urgent then
         raise No_Stop with "this floor is closed";
      end if;
      Panel.Light (To);
      Set_True (Called);
   end Press;

   task body Cabin is
      Place, Goal : Floor := Floor'First;
   begin
      loop
         Suspend_Until_True (Called);
         while Panel.Number_Lit > 0 loop
            Goal := Panel.Nearest (Place);
            for Step in 1 .. Between (Place, Goal) loop
               delay until Clock + Per_Floor;
               Place := (if Goal > Place then Floor'Succ (Place) else Floor'Pred (Place));
            end loop;
            Panel.Put_Out (Place);
            Ada.Text_IO.Put_Line ("stop" & Floor'Image (Place));
            delay until Clock + 2 * Per_Floor;
         end loop;
      end loop;
   end Cabin;
end Building;
with Building;
package Passengers is
   task type Passenger (First, Pause : Positive; Hurried : Boolean) with Priority => 5;
   Guest  : Passenger (First => 100, Pause => 1_500, Hurried => False);
   Porter : Passenger (2_000, 1_500, True);
end Passengers;
with Ada.Real_Time; use Ada.Real_Time;
with Ada.Text_IO;
package body Passengers is
   subtype Turn is Positive range 1 .. 3;
   Calls : constant array (Turn) of Building.Floor := (3, 4, 1);
   task body Passenger is
      Next : Time := Clock + Milliseconds (First);
   begin
      for I in Turn loop
         delay until Next;
         begin
            Building.Press (Calls (I), Urgent => Hurried);
         exception
            when Building.No_Stop =>
               Ada.Text_IO.Put_Line ("no stop at" & Building.Floor'Image (Calls (I)));
         end;
         Next := Next + Milliseconds (Pause);
      end loop;
   end Passenger;
end Passengers;
with Passengers;
procedure Main is
begin
   null;
end Main;
