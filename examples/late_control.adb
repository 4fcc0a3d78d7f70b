--  A control task that should act each ten milliseconds, on a level that another task measures. Where the level on channel 1 is above 80, measuring takes it 25
--  milliseconds, and the control task waits for it at an entry past the time of its own next turn: that turn is late.
pragma Profile (Ravenscar);
pragma Partition_Elaboration_Policy (Sequential);
with Ada.Real_Time; use Ada.Real_Time;
with Control_IO; use Control_IO;
package App is
   protected Mailbox with Priority => 20 is
      procedure Send (Value : Integer);
      entry Receive (Value : out Integer);
   private
      Full : Boolean := False;
      Kept : Integer := 0;
   end Mailbox;

   task Sensor with Priority => 12;
   task Control with Priority => 10;
end App;
package body App is
   protected body Mailbox is
      procedure Send (Value : Integer) is
      begin
         Kept := Value;
         Full := True;
      end Send;

      entry Receive (Value : out Integer) when Full is
      begin
         Value := Kept;
         Full := False;
      end Receive;
   end Mailbox;

   task body Sensor is
      Next  : Time := Clock;
      Level : Integer;
   begin
      for I in 1 .. 7 loop
         Level := Read (1);
         if Level > 80 then
            Next := Next + Milliseconds (25);
         else
            Next := Next + Milliseconds (10);
         end if;
         delay until Next;
         Mailbox.Send (Level);
      end loop;
   end Sensor;

   task body Control is
      Next  : Time := Clock;
      Level : Integer;
   begin
      for I in 1 .. 7 loop
         Mailbox.Receive (Level);
         Put ("level", Level);
         Next := Next + Milliseconds (10);
         delay until Next;
      end loop;
   end Control;
end App;
with App;
procedure Main is
begin
   null;
end Main;
