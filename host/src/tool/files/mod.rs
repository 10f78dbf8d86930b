//! Files of the host: images, what is read, and what is written.
pub mod atomic_write;
pub mod each_image;
pub mod folder_index;
pub mod image_file;
pub mod input;
pub mod signatures;
