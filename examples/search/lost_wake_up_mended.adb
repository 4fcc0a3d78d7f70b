--  Each 14 milliseconds a part may come, which channel 1 tells, and in the end a last one. A packer takes 15 milliseconds for each. Where none lies on the table it
--  writes so, which takes it a millisecond, and then waits until one lies there: that is the barrier of its entry, and no call has to wake it.
pragma Profile (Ravenscar);
with Ada.Real_Time; use Ada.Real_Time;
with Control_IO; use Control_IO;
package App is
   Rounds : constant Integer := 20;

   protected Table with Priority => 15 is
      procedure Bring (Is_Last : Boolean);
      procedure Take (Is_There : out Boolean; Is_Last : out Boolean);
      entry Sleep;
   private
      Lying    : Integer := 0;
      Has_Last : Boolean := False;
      Is_Some  : Boolean := False;
   end Table;

   task Belt with Priority => 10;
   task Packer with Priority => 5;
end App;
package body App is
   protected body Table is
      procedure Bring (Is_Last : Boolean) is
      begin
         Lying := Lying + 1;
         Has_Last := Is_Last;
         Is_Some := True;
      end Bring;

      procedure Take (Is_There : out Boolean; Is_Last : out Boolean) is
      begin
         Is_There := Lying > 0;
         Is_Last := Has_Last and Lying = 1;
         if Lying > 0 then
            Lying := Lying - 1;
         end if;
         Is_Some := Lying > 0;
      end Take;

      entry Sleep when Is_Some is
      begin
         null;
      end Sleep;
   end Table;

   task body Belt is
      Next : Time := Clock;
   begin
      for Round in 1 .. Rounds loop
         Next := Next + Milliseconds (14);
         delay until Next;
         if Read (1) = 1 or Round = Rounds then
            Table.Bring (Round = Rounds);
         end if;
      end loop;
   end Belt;

   task body Packer is
      Is_There : Boolean;
      Is_Last  : Boolean := False;
   begin
      while not Is_Last loop
         Table.Take (Is_There, Is_Last);
         if Is_There then
            delay until Clock + Milliseconds (15);
         else
            Put ("none", 0);
            delay until Clock + Milliseconds (1);
            Table.Sleep;
         end if;
      end loop;
      Put ("packed", 1);
   end Packer;
end App;
with App;
procedure Main is
begin
   null;
end Main;
