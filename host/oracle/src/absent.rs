//! The oracle without the originals: there is no document, so nothing can be asked of one.
use crate::Edit;

#[derive(Clone)]
pub struct Document(Nothing);

/// Of this there is no value.
#[derive(Clone)]
enum Nothing {}

impl Document {
    pub fn load(_rows: &[u64], _successors: &[u64]) -> Result<Self, String> {
        Err("originals absent".into())
    }
    pub fn merge(&mut self, _operations: &[u64]) -> Result<Vec<Edit>, String> {
        match self.0 {}
    }
    pub fn merge_changes(&mut self, _operations: &[u64]) -> Result<(), String> {
        match self.0 {}
    }
    pub fn rows(&self) -> Vec<u64> {
        match self.0 {}
    }
    pub fn successors(&self) -> Vec<u64> {
        match self.0 {}
    }
    pub fn order_holds(&self) -> bool {
        match self.0 {}
    }
    pub fn winners(&self) -> Vec<usize> {
        match self.0 {}
    }
    pub fn visible_places(&self, _clock: &[u64]) -> Vec<usize> {
        match self.0 {}
    }
    pub fn visible_values(&self, _clock: &[u64]) -> Vec<(usize, u64)> {
        match self.0 {}
    }
    pub fn picture(&self, _clock: &[u64]) -> Vec<u64> {
        match self.0 {}
    }
    pub fn spot(&self, _object: u64, _clock: &[u64], _target: usize) -> Option<(u64, usize)> {
        match self.0 {}
    }
}
