--  A serial line: each byte that comes is an interrupt of channel 3, and 0 ends a message. The handler adds bytes up and opens the entry at which a task waits
--  for a whole message. Of two bytes that come at one time the first is lost, as in a receiver with one register: both handlers read the second one.
pragma Profile (Ravenscar);
pragma Partition_Elaboration_Policy (Sequential);
with Control_IO; use Control_IO;
package App is
   protected Receiver is
      procedure Byte_Is_There with Attach_Handler => 3;
      entry Message (Bytes : out Integer; Sum : out Integer);
   private
      Count    : Integer := 0;
      Total    : Integer := 0;
      Is_Whole : Boolean := False;
   end Receiver;

   task Reader with Priority => 10;
end App;
package body App is
   protected body Receiver is
      procedure Byte_Is_There is
         Byte : constant Integer := Read (3);
      begin
         if Byte = 0 then
            Is_Whole := True;
         else
            Count := Count + 1;
            Total := Total + Byte;
         end if;
      end Byte_Is_There;

      entry Message (Bytes : out Integer; Sum : out Integer) when Is_Whole is
      begin
         Bytes := Count;
         Sum := Total;
         Count := 0;
         Total := 0;
         Is_Whole := False;
      end Message;
   end Receiver;

   task body Reader is
      Bytes : Integer;
      Sum   : Integer;
   begin
      loop
         Receiver.Message (Bytes, Sum);
         Put ("bytes", Bytes);
         Put ("sum", Sum);
      end loop;
   end Reader;
end App;
with App;
procedure Main is
begin
   null;
end Main;
