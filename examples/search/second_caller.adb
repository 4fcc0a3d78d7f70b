--  A worker waits at an entry for orders, which are interrupts of channel 1 with a number that isn't 0. Where it has had none for 120 milliseconds a spare one,
--  which looks each ten milliseconds, takes over. The defect: the spare one calls the same entry, at which the worker may wait still, and an entry of this profile
--  has a queue of one caller.
pragma Profile (Ravenscar);
with Ada.Real_Time; use Ada.Real_Time;
with Control_IO; use Control_IO;
package App is
   protected Orders is
      procedure Come with Attach_Handler => 1;
      entry Take (Order : out Integer);
      procedure Look (Idle : out Boolean);
   private
      Last   : Integer := 0;
      Is_New : Boolean := False;
      Turns  : Integer := 0;
   end Orders;

   task Worker with Priority => 10;
   task Spare with Priority => 8;
end App;
package body App is
   protected body Orders is
      procedure Come is
      begin
         if Read (1) /= 0 then
            Last := Read (1);
            Is_New := True;
            Turns := 0;
         end if;
      end Come;

      entry Take (Order : out Integer) when Is_New is
      begin
         Order := Last;
         Is_New := False;
      end Take;

      procedure Look (Idle : out Boolean) is
      begin
         if Turns < 12 then
            Turns := Turns + 1;
         end if;
         Idle := Turns = 12;
      end Look;
   end Orders;

   task body Worker is
      Order : Integer;
   begin
      loop
         Orders.Take (Order);
         Put ("order", Order);
         Order := 0;
      end loop;
   end Worker;

   task body Spare is
      Next  : Time := Clock;
      Idle  : Boolean;
      Order : Integer;
   begin
      loop
         Next := Next + Milliseconds (10);
         delay until Next;
         Orders.Look (Idle);
         if Idle then
            Orders.Take (Order);
            Put ("spare", Order);
         end if;
      end loop;
   end Spare;
end App;
with App;
procedure Main is
begin
   null;
end Main;
