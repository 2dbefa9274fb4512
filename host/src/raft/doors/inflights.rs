// Behind src/tracker/inflights.rs: the window's limit, which the text keeps private.
impl Inflights {
    pub fn cap(&self) -> usize {
        self.cap
    }
}
