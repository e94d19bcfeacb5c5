// Appended to the copy of floppy.rs: what its private fields hold, and a way to set them.

impl Floppy {
    /// How many bytes of data and of the reply are unread.
    pub fn unread(&self) -> (usize, usize) {
        (unread(&self.data).len(), unread(&self.reply).len())
    }

    /// Hands the inserted disk back, if there is one.
    pub fn take_disk(&mut self) -> Option<Disk> {
        self.disk.take()
    }

    /// The inserted disk, to be changed.
    pub fn disk_mut(&mut self) -> Option<&mut Disk> {
        self.disk.as_mut()
    }

    /// Replaces the reply.
    pub fn set_reply(&mut self, bytes: &[u8]) {
        self.reply.set(bytes);
    }

    /// Drops the bytes of a command that is partly sent.
    pub fn drop_command(&mut self) {
        self.cmd.clear();
    }

    /// Has a write of no sector in progress, or none. Its bytes are not sent here.
    pub fn set_writing(&mut self, on: bool) {
        let [c, h, r, n] = [0; 4];
        self.data_in = on.then(|| (0, SectorId { c, h, r, n }, 0, Vec::new()));
    }

    /// What the ports do not show at once.
    pub fn boxes(&self) -> Boxes<'_> {
        Boxes {
            seek: self.int_seek_completed as u8,
            lost: self.lost_read,
            index: self.read_id_idx,
            command: &self.cmd,
            reply: unread(&self.reply),
            data: unread(&self.data),
            write: self
                .data_in
                .as_ref()
                .map(|(c1, id, left, held)| (*c1, id, *left, held.as_slice())),
        }
    }

    /// Sets every private field but the disk.
    pub fn set_boxes(&mut self, motor: bool, cylinder: u8, boxes: &Boxes<'_>) {
        self.motor = motor;
        self.cylinder = cylinder;
        self.int_seek_completed = match boxes.seek {
            0 => IntStatus::Idle,
            1 => IntStatus::Running,
            _ => IntStatus::Done,
        };
        self.lost_read = boxes.lost;
        self.read_id_idx = boxes.index;
        self.cmd = boxes.command.to_vec();
        self.reply = Cursor::new(boxes.reply.to_vec());
        self.data = Cursor::new(boxes.data.to_vec());
        let write = boxes.write;
        self.data_in = write.map(|(c1, id, left, held)| (c1, id.clone(), left, held.to_vec()));
    }
}

/// The private fields, but motor, cylinder and disk.
pub struct Boxes<'a> {
    /// 0 idle, 1 running, 2 done.
    pub seek: u8,
    pub lost: u32,
    pub index: u16,
    /// The bytes of a command that is partly sent.
    pub command: &'a [u8],
    /// What is unread of the reply.
    pub reply: &'a [u8],
    /// What is unread of the data.
    pub data: &'a [u8],
    /// A write in progress: the second byte of its command, its sector, how many
    /// bytes it still takes, and those that it has.
    pub write: Option<(u8, &'a SectorId, usize, &'a [u8])>,
}

fn unread(bytes: &Cursor<Vec<u8>>) -> &[u8] {
    &bytes.get_ref()[bytes.position() as usize..]
}
