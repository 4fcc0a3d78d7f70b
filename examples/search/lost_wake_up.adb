--  Each 14 milliseconds a part may come, which channel 1 tells, and in the end a last one. A packer takes 15 milliseconds for each. Where none lies on the table it
--  writes so, which takes it a millisecond, and then waits to be woken. The defect: a part that comes within that millisecond wakes nobody. The next one makes good
--  for it, but if it was the last one the packer waits forever.
pragma Profile (Ravenscar);
with Ada.Real_Time; use Ada.Real_Time;
with Control_IO; use Control_IO;
package App is
   Rounds : constant Integer := 20;

   protected Table with Priority => 15 is
      procedure Bring (Is_Last : Boolean);
      procedure Take (Is_There : out Boolean; Is_Last : out Boolean);
      procedure Go_To_Sleep;
      entry Sleep;
   private
      Lying     : Integer := 0;
      Has_Last  : Boolean := False;
      Is_Asleep : Boolean := False;
      Is_Woken  : Boolean := False;
   end Table;

   task Belt with Priority => 10;
   task Packer with Priority => 5;
end App;
package body App is
   protected body Table is
      procedure Bring (Is_Last : Boolean) is
      begin
         Lying := Lying + 1;
         Has_Last := Is_Last;
         if Is_Asleep then
            Is_Asleep := False;
            Is_Woken := True;
         end if;
      end Bring;

      procedure Take (Is_There : out Boolean; Is_Last : out Boolean) is
      begin
         Is_There := Lying > 0;
         Is_Last := Has_Last and Lying = 1;
         if Lying > 0 then
            Lying := Lying - 1;
         end if;
      end Take;

      procedure Go_To_Sleep is
      begin
         Is_Asleep := True;
      end Go_To_Sleep;

      entry Sleep when Is_Woken is
      begin
         Is_Woken := False;
      end Sleep;
   end Table;

   task body Belt is
      Next : Time := Clock;
   begin
      for Round in 1 .. Rounds loop
         Next := Next + Milliseconds (14);
         delay until Next;
         if Read (1) = 1 or Round = Rounds then
            Table.Bring (Round = Rounds);
         end if;
      end loop;
   end Belt;

   task body Packer is
      Is_There : Boolean;
      Is_Last  : Boolean := False;
   begin
      while not Is_Last loop
         Table.Take (Is_There, Is_Last);
         if Is_There then
            delay until Clock + Milliseconds (15);
         else
            Put ("none", 0);
            delay until Clock + Milliseconds (1);
            Table.Go_To_Sleep;
            Table.Sleep;
         end if;
      end loop;
      Put ("packed", 1);
   end Packer;
end App;
with App;
procedure Main is
begin
   null;
end Main;
